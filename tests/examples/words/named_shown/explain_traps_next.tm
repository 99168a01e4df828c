nodes 3;
shared a[2];
lock m[2];
x = 5;
if me == 0 { assert x == 4; } else if me == 1 { a[x] = 1; } else { acquire m[x]; }
