nodes 2;
if 1 print 2;
