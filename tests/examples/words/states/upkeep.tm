words 2;
locks 0;
[me] = me + 3;
barrier;
