words 1; locks 0; if me == 0 { [0] = 7; } barrier; x = [0]; print x;
