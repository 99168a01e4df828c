words 3; locks 2;
acquire 0; x = [0]; [0] = x + 1; release 0;
if me == 1 { [1] = 5; }
if me == 2 { acquire 1; [2] = 6; release 1; }
barrier;
x = [0]; y = [1]; z = [2];
print x * 100 + y * 10 + z;
