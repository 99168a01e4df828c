nodes 2;
x = 1 * (not 2);
print x;
