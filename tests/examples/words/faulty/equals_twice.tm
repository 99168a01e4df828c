words 2; locks 1;
x = y = 0;
print x + y;
