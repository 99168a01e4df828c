words 1;
locks 2;
acquire me;
[0] = me;
release me;
