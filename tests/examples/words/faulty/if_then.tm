words 2; locks 1;
if me == 0 then { print 1; }
