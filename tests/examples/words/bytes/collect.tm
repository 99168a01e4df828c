words 192; locks 0;
[64 * me] = me + 1;
barrier;
x = [64 * ((me + 1) % nodes)];
barrier;
y = [64 * ((me + 2) % nodes)];
print x + y;
