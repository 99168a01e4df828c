shared s;
x = 1;
assert x / x == 1;
assert s % 2;
assert x and 1 / x;
