shared a[3];
a[0 - 1] = 1;
