words 1; locks 1;
acquire 0;
a = [0];
[0] = me + 1;
release 0;
ok = 1 / (a <= me);
