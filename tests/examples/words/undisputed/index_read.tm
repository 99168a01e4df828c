words 4; locks 1;
acquire 0; i = [0]; [0] = i + 1; release 0;
[1 + i] = me;
acquire 0; n = [0]; release 0;
print n;
