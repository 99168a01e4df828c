shared a[3], s;
x = s + a[0] * s - 1;
x = 1 / 0 + s;
print a[1] / a[2];
