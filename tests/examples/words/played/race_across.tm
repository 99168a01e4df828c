words 2; locks 1;
if me == 0 { [0] = 1; acquire 0; [1] = 1; release 0; [0] = 2; }
if me == 1 { acquire 0; x = [1]; release 0; y = [0]; print x; print y; }
barrier;
z = [0]; print z;
