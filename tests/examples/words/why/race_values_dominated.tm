words 3;
locks 1;
if me == 0 { [0] = 1; }
if me == 1 { [0] = 2; }
barrier;
if me == 2 { [0] = 3; }
barrier;
x = [0];
