words 2; locks 2;
if me == 0 { [0] = 1; }
if me == 1 { acquire 1; release 1; [0] = 2; }
barrier;
if me == 2 { x = [0]; print x; }
