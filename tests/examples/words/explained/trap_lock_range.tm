words 1; locks 1;
print 1;
acquire
 1;
