words 1; locks 0;
if me == 0 { x = 1 / 0; }
barrier;
