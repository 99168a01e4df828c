shared s;
x = 1;
assert x == 1; assert s; assert 1; assert 0; assert x and s;
