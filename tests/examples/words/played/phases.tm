words 8; locks 1;
[me] = me * me + 1;
barrier;
l = [(me + 1) % nodes];
acquire 0; s = [7]; [7] = s + l; release 0;
barrier;
x = [7];
print x;
barrier;
if me == 0 { [7] = 0; }
barrier;
acquire 0; x = [7]; [7] = x + me; release 0;
barrier;
x = [7];
print x;
