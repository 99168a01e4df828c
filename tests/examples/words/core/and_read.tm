shared s, a[3];
x = 1;
print x and s, s and x, s and a[x], x and s and a[0];
