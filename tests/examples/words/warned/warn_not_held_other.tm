words 4; locks 2;
acquire 0; [0] = 1; release 1;