shared a[2];
x = a[0]
[1];
