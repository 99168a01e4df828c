words 4; locks 2;
i = 0;
while i < 3 { x = [me]; [me] = x + 1; i = i + 1; }
acquire me; y = [2 + me];
acquire 1 - me;
release me; release 1 - me;
