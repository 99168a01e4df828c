nodes 2;
x = 1;
print x[0];
