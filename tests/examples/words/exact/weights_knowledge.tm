words 2; locks 1;
if me == 0 { acquire 0; [1] = 1; release 0; acquire 0; release 0; }
if me == 1 { acquire 0; x = [1]; release 0; [0] = 7; print x; }
if me == 2 { [0] = 8; }
barrier;
if me == 3 { y = [0]; print y; }
