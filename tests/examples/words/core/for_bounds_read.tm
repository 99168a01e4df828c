shared a[4];
for i in a[0] + a[1]..a[2] { print a[3]; }
for i in a[0]..4 { print i; }
