nodes 1;
x = 1; y = 2;
print x and y, x or y, x == 1 and y == 2 or x, x and (y or me), not x and y;
