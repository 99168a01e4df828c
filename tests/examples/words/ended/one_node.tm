words 1; locks 1;
acquire 0; [0] = 1; release 0;
