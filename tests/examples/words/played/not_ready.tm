words 1; locks 0; print 1;
