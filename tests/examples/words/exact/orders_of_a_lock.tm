words 1; locks 2;
if me == 0 { [0] = 1; acquire 0; release 0; }
if me == 1 { acquire 0; release 0; acquire 1; acquire 0; release 0; release 1; [0] = 2; acquire 0; release 0; }
if me == 2 { acquire 0; x = [0]; release 0; acquire 0; y = [0]; release 0; print x; print y; }
