words 2; locks 0; [me] = 10 + me; barrier; x = [0]; y = [1]; print x; print y;
