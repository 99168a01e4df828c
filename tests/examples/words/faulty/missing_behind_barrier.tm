words 2; locks 1;
[me] = 1;
barrier
x = [1 - me];
print x;
