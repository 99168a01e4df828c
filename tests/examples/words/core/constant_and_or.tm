nodes 1;
print 0 and 1 / 0, 1 or 1 / 0, 1 and 2, 0 or 0, 3 or 0;
const_ = 1;
print 1 and 1 / 0, 0 or 1 % 0;
