shared before, a[5], after;
a[0] = 1; a[4] = 2; after = 3;
x = 1;
a[x] = 4;
