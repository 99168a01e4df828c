words 1; locks 1;
acquire 0;
[0] = 4;
release 0;
if me == 0 { [0] = 1; }
barrier;
x = [0];
print x;
