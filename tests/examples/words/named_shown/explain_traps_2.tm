nodes 4;
shared a[3], s;
lock m[2], one;
x = me;
if x == 0 { print a[x / s]; }
if x == 1 { release m[0]; }
if x == 2 { with one { acquire one; } }
if x == 3 { s = 5; release m[s]; }
