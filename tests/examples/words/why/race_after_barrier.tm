words 2;
locks 0;
[me] = me;
barrier;
x = [1 - me];
[me] = x + 7;
barrier;
