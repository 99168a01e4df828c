shared a[2];
x = a
+ 1;
