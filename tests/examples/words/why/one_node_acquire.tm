words 1;
locks 1;
[0] = 7;
[0] = 8;
x = [0];
acquire 0;
release 0;
barrier;
