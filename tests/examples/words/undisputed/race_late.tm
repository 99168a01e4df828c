words 4; locks 0;
i = 0;
while i < 3 { x = [me]; [me] = x + 1; i = i + 1; }
[3] = me;
