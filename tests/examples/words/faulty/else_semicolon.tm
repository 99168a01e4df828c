words 2; locks 1;
if me == 0 { print 1; };
else { print 2; }
