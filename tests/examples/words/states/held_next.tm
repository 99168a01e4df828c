words 1;
locks 1;
acquire 0;
release 0;
