words 1; locks 2;
acquire me; acquire 1 - me; release me; release 1 - me;
i = 0;
while i < 50 { [0] = i; i = i + 1; }
