words 128; locks 2;
[64 * me] = me + 1;
barrier;
y = [64 * (1 - me)];
acquire me; acquire 1 - me;
print y;
