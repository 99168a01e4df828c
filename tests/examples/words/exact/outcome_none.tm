words 2; locks 1;
[me] = 1;
acquire 0;
x = [1 - me];
release 0;
print x;
