lock m[2];
print 1;
m[0] = 1;
