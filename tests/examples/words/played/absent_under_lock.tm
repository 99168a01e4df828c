words 70; locks 1;
if me == 1 { [64] = 1; }
barrier;
acquire 0; x = [64]; [64] = x + 1; release 0;
barrier;
x = [64];
print x;
