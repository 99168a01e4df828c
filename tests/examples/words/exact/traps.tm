words 1; locks 1;
if me == 0 { acquire 0; [0] = 1; release 0; }
if me == 1 { acquire 0; x = [0]; release 0; y = 6 / x; print y; }
if me == 2 { release 0; }
