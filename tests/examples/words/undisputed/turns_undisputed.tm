words 2; locks 1;
if me == 0 { while 1 { x = [0]; [0] = 1 - x; } }
acquire 0; [1] = 1; release 0;
