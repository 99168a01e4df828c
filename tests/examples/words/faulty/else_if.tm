words 4; locks 2;
if me == 0 { print 1; } else if me == 1 { print 2; }