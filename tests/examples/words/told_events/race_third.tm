words 3; locks 2;
if me == 0 { [0] = 1; acquire 0; [1] = 1; release 0; }
if me == 1 { acquire 0; x = [1]; release 0; acquire 1; [2] = x; release 1; }
if me == 2 { acquire 1; y = [2]; release 1; z = [0]; }
