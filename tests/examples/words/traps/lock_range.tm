words 1; locks 1;
acquire me;
release me;
