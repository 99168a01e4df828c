words 2; locks 1;
acquire 0; x = [0]; [0] = x + 1; release 0;
