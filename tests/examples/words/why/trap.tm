words 1;
locks 0;
print 6;
[me + 1] = 9;
