words 4; locks 2;
x = 1 / 0 + 7 % (2 - 2); print x / (1 / 0); print 1 / (1 / 0); print 0 / 1; print 1 / me;