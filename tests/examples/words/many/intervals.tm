words 1; locks 1; if me == 0 { while x < 300 { acquire 0; [0] = x + 1; release 0; x = x + 1; } } barrier; y = [0]; print y;
