nodes 1;
print
x;
