words 2;
locks 0;
if me == 0 { [0] = 1; }
barrier;
if me == 1 { x = [0]; [1] = 2; }
barrier;
y = [1];
