words 2; locks 2;
acquire me;
acquire 1 - me;
x = [me];
[1 - me] = x + 1;
release 1 - me;
release me;
print x;
