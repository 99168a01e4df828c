words 2; locks 1;
acquire 0; x = [0]; [0] = x + 1; release 0;
barrier;
if me == 1 { y = 1 / (x - x); }
acquire 0; x = [0]; [0] = x + 1; release 0;
print x;
