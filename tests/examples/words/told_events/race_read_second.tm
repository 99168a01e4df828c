words 2; locks 1;
if me == 0 { acquire 0; [0] = 3; [1] = 1; release 0; [0] = 4; }
if me == 1 { acquire 0; f = [1]; release 0; x = [0]; }
