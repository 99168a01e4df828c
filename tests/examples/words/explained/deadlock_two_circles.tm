words 1;
locks 4;
acquire me;
barrier;
acquire 3 - me;
