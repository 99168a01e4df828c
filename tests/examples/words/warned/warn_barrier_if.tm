words 4; locks 2;
if me == 0 { barrier; }
if me { barrier; } else { barrier; }
if nodes - (me) { if 1 { barrier; } } else { barrier; barrier; }
if 1 { barrier; }
if me { print 1; } barrier;