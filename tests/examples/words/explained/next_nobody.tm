words 1;
locks 1;
print 1;
if me == 0 { acquire 0; }
