words 2; locks 0;
if me == 0 { [1] = 5; }
barrier;
if me < 2 { x = [1]; [0] = x; }
