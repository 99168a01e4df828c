words 1; locks 1;
acquire 0; [0] = 1; barrier; x = [0]; y = 1 / (x - 1);
