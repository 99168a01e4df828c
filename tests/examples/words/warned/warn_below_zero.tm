words 4; locks 2;
i = 3; while i >= 0 { i = i - 1; }
print i < 0; print 0 > i; print 0 <= i; print (i) < (1 - 1);
print i > 0; print 0 < i; print i <= 0; print 0 >= i; print i == 0;