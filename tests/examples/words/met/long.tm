words 1; locks 2;
if me == 2 { x = 1 / 0; }
acquire me; acquire 1 - me;
if me == 0 { [0] = 1; }
if me == 1 { x = [0]; i = 0; while i < 2000000 * (1 - x) { i = i + 1; } }
release me; release 1 - me;
