words 1; locks 1; acquire 0; release 0; print 2; release 0;
