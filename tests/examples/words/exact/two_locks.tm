words 2; locks 2;
acquire me;
[0] = me + 1;
release me;
acquire 1 - me;
x = [0];
release 1 - me;
print x;
