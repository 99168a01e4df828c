shared s;
lock m, other;
acquire m;
s = 1;
print s;
with other { }
