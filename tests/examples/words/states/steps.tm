words 1;
locks 0;
x = 1;
x = 0;
y = 2;
z = 3;
x = 4;
