shared a[4][4];
x = 1; y = 2;
a[x + 1][y - 1] = a[x - 1][y + 1];
