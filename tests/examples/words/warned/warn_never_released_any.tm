words 4; locks 2;
acquire 1; release me;