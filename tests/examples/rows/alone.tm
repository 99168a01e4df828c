words 1; locks 0; [0] = 7; x = [0]; print x + me;
