shared a[2][2];
a[0]
= 1;
