lock m[4][16];
with m[me % 4][me] { print 1; }
with m[3][15] { print 2; }
