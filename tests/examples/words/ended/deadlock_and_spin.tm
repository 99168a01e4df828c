#: lock 2 other
words 1; locks 3;
if me == 2 { while 1 { acquire 2; x = [0]; release 2; } }
acquire me; acquire 1 - me;
release me; release 1 - me;
