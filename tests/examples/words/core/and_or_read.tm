shared s, a[3];
x = 1;
if s == 1 and a[x] == 2 or not s and x < 3 or a[2] { x = 2; }
