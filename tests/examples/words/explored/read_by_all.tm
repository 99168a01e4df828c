words 1;
locks 0;
x = [0];
print x;
