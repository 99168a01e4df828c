nodes 1;
shared s;
x = 1;
x = 2;
assert s == x;
