words 1;
locks 0;
n = [0];
print 1 / n;
