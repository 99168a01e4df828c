words 2; locks 0;
[me] = me + 5;
barrier;
x = [1 - me];
print x;
