words 4; locks 2;
acquire 0 release 0;