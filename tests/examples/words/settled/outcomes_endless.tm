words 1;
locks 0;
while me == 1 { }
print 1;
