shared a[2], b[2][3], c;
x = a[1][0];
