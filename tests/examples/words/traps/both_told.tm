words 2; locks 1;
if me == 0 { x = 1 / 0; }
acquire 0;
y = [2];
