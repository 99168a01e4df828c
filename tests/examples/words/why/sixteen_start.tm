words 16;
locks 0;
[me] = 1;
barrier;
