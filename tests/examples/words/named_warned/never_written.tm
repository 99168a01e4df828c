shared a[3], s;
print a[1], s;
print s;
