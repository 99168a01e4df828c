words 2; locks 2;
if me == 0 { acquire 0; release 0; [0] = 1; acquire 1; release 1; }
if me == 1 { acquire 1; release 1; x = [0]; acquire 0; release 0; y = [0]; print x; print y; }
if me == 2 { acquire 0; z = [0]; release 0; print z; }
