words 1;
locks 1;
acquire 0;
x = [0];
[0] = 1;
x = 0;
release 0;
