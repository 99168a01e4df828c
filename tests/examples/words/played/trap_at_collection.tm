words 2; locks 1;
[me % 2] = me + 1;
barrier;
if me == 0 { acquire 0; x = [5]; }
acquire 0;
print 1;
