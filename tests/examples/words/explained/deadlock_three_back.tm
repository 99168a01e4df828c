words 1;
locks 3;
acquire me;
barrier;
acquire (me + 2) % 3;
