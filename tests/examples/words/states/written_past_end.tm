words 3;
locks 0;
[me] = me + 1;
[2] = me;
