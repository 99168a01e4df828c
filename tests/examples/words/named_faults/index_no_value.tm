shared a[3];
a[1 / 0] = 1;
