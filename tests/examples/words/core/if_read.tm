shared s, a[2];
if s + a[0] > 3 { print s; } else { print a[1]; }
