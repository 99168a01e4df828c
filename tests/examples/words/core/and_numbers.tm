shared a[3], b[3];
x = 1;
print a[0] + a[1] == 2 and b[0] + b[1] == 3, 5;
x = (a[0] and a[1]) + (b[0] or b[1]);
