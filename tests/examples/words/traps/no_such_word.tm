words 1; locks 1; [1] = 1;
