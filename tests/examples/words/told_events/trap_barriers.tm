words 2; locks 0;
[me] = me + 1;
barrier;
a = [1 - me];
barrier;
[me] = a;
barrier;
b = [1 - me];
ok = 1 / (b != 1);
