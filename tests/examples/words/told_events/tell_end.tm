words 1; locks 2;
if me == 0 { acquire 0; acquire 1; x = [0]; [0] = x + 1; release 1; release 0; }
if me == 1 { acquire 1; acquire 0; x = [0]; [0] = x + 1; release 0; release 1; }
if me == 2 { acquire 0; x = [0]; release 0; y = 1 / x; print y; }
