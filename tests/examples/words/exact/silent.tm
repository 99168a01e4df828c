words 1; locks 1;
if me == 0 { acquire 0; [0] = 5; release 0; }
if me == 1 { acquire 0; [0] = 5; release 0; }
if me == 2 { [0] = 6; acquire 0; x = [0]; release 0; print x; }
