words 1; locks 0;
if me == 0 { while 1 { } }
[0] = me;
