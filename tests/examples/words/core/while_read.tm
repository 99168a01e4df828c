shared s, a[2];
x = 0;
while s < a[x] { x += s; print x; }
while s == 0 { }
