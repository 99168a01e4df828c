nodes 4;
shared a[3], s;
lock m[2], one;
x = me;
if x == 0 { a[x + 3] = 1; }
if x == 1 { with m[x + 1] { print 1; } }
if x == 2 { assert s == 1; }
if x == 3 { assert s / s == 1; }
