words 3;
locks 2;
[me] = 1;
barrier;
x = [(me + 1) % 3];
barrier;
acquire 1;
[me] = x;
release 1;
