words 1; locks 1;
if me == 0 { acquire 0; [0] = 9; [0] = 0; release 0; }
if me == 1 { [0] = 3; acquire 0; x = [0]; release 0; print x; }
