words 1; locks 0; if me == 2 { [0] = 12; } barrier; if me == 1 { [0] = 11; } barrier; if me == 0 { [0] = 10; } barrier; x = [0]; print x;
