words 1; locks 1;
if me == 2 { print 5; }
if me < 2 { acquire 0; }
print me;
