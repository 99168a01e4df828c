words 200;
locks 0;
if me == 1 { [0] = 1; [70] = 2; [199] = 3; }
barrier;
