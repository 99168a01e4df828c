words 2; locks 0;
[me] = 1;
x = [1 - me];
print x;
