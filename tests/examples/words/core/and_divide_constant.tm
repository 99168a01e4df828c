nodes 1;
x = 1;
print x and 4 / 2, x or 4 % 2, x and 1 / 0;
