words 1; locks 1;
if me == 0 { acquire 0; release 0; acquire 0; release 0; }
[0] = me + 1;
barrier;
x = [0];
print x;
