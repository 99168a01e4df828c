shared a[2], b[2][3], c;
x = c[1];
