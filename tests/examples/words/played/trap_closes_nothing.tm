words 2; locks 1;
if me == 0 { [0] = 1; release 0; }
if me == 1 { acquire 0; acquire 0; }
if me == 2 { x = [0]; acquire 0; y = [0]; print x; print y; }
