words 70; locks 0; [0] = 1; barrier; [69] = 2; barrier; x = [0]; y = [69]; print x + y; barrier;
