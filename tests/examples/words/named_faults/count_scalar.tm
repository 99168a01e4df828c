shared a;
a[0] = 1;
