words 1;
locks 1;
acquire 0;
x = 1 / me;
release 0;
