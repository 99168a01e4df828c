words 4; locks 1;
[me] = 1; [me] = 2;
acquire 0; x = [3]; [3] = x * 2 + me; release 0;
y = [me];
print x;
