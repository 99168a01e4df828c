words 1;
locks 1;
if me == 0 { barrier; }
print 1;
[0] = 1;
