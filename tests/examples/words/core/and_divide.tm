nodes 1;
x = 1; y = 0;
print y != 0 and x / y, y == 0 or x % y, x / y and y, x and (y and x / y);
