words 1; locks 1; release 0;
