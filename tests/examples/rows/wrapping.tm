words 1; locks 0; print 0 - 1; print 7 / 2 * 2 + 7 % 2 == 7;
