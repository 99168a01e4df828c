words 1; locks 1;
if me == 0 { acquire 0; x = [0]; release 0; x = 1 / x; acquire 0; [0] = 1; release 0; }
if me == 1 { while f == 0 { acquire 0; f = [0]; release 0; } }
