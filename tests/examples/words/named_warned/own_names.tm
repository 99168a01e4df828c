shared s;
assert s == 0 and s < 2;
s = 1;
x = s;
print x;
