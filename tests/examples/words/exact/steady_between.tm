words 3; locks 1;
if me == 0 { [0] = 1; acquire 0; release 0; [0] = 2; acquire 0; release 0; }
if me == 1 { acquire 0; x = [0]; release 0; [1] = 1; y = [0]; acquire 0; z = [0]; release 0; print x; print y; print z; }
