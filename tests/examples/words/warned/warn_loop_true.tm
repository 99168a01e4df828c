words 2; locks 0;
while true { print 1; }
