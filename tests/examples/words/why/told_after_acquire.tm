words 1;
locks 1;
[0] = me;
acquire 0;
release 0;
