words 300;
locks 0;
[me * 64] = 1;
[me + 255] = 2;
barrier;
x = [0];
