nodes 2;
print = 3;
