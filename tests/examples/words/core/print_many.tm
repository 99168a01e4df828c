shared a[3];
print a[0] + a[1], a[2], 1, me, a[0] * a[1];
