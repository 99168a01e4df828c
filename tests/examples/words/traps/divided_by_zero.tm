words 1; locks 1; x = 1 / 0;
