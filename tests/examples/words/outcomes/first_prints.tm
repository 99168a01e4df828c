# All nodes print before they first share anything; node 2 traps, so nobody departs.
words 1; locks 0;
if me == 1 { print 7; print 8; }
if me == 0 { print 5; }
if me == 2 { x = 1 / 0; }
print me;
barrier;
print me + 10;
