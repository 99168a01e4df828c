shared a[3];
x = a(0);
