nodes 2;
print 1;
_x[0] = 1;
