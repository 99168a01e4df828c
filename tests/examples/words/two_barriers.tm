words 1;
locks 1;
barrier;
acquire 0;
[0] = 1;
release 0;
barrier;
