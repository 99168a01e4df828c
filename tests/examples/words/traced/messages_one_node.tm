words 1;
locks 1;
barrier;
acquire 0;
