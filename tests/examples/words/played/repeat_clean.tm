words 1; locks 0; if me == 1 { [0] = 5; } barrier; x = [0]; print x;
