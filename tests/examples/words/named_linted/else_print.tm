nodes 2;
if 1 { } else print 1;
