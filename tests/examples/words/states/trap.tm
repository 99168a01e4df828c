words 2;
locks 0;
x = 0 - 1;
[1] = x;
y = 1;
[2] = 1;
