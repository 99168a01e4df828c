shared a[2];
x = 3;
a[x == 3] = 1;
a[x < 3 or x] = 2;
