words 1; locks 2;
if me == 2 { x = 1 / 0; }
acquire me; acquire 1 - me; release me; release 1 - me;
i = 0;
while i < 50 { [0] = i; i = i + 1; }
