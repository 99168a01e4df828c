words 2;
locks 0;
[me] = 1;
barrier;
