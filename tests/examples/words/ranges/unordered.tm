words 2; locks 1; [0] = 5; x = [0]; print x + me;
