shared s, a[3];
x = 1;
print x or s, s or x, s or a[x], x or s or a[0];
