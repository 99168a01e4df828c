words 2; locks 1; [me % 2] = me; barrier; acquire 0; x = [0]; [0] = x + 1; release 0; barrier; y = [0]; print x; print y;
