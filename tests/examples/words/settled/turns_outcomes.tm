words 1; locks 0;
if me == 1 { while 1 { print 1; } }
print 2;
