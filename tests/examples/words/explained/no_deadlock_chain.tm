words 1;
locks 3;
acquire me;
barrier;
if me > 0 { acquire me - 1; }
