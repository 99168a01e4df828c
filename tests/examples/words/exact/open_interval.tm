words 2; locks 1;
if me == 0 { acquire 0; [0] = 1; [1] = 1; release 0; }
if me == 1 { [0] = 7; acquire 0; x = [0]; y = [1]; release 0; print x; print y; }
