words 1; locks 0;
if me == 0 { [0] = 1; }
if me == 1 { f = [0]; if f { print 1; } print 2; }
