words 2; locks 0; [0] = me; barrier; x = [0]; print x; [1] = 3; barrier; y = [1]; print y;
