words 2; locks 1; if me == 0 { acquire 0; [0] = 3; release 0; } barrier; if me == 1 { acquire 0; x = [0]; [0] = x + 1; release 0; } barrier; acquire 0; x = [0]; release 0; print x;
