shared a[2], s;
x = 1;
a[x and s] = 1;
x = a[x or s];
