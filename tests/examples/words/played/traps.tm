words 2; locks 0;
[me % 2] = me + 1;
barrier;
if me == 1 { [2] = 1; }
x = [0];
print x;
barrier;
print 99;
