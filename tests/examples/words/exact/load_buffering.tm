words 2; locks 0;
x = [me];
[1 - me] = 1;
print x;
