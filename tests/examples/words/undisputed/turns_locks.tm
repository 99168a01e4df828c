words 2; locks 2;
if me == 0 { while 1 { acquire 0; x = [0]; [0] = 1 - x; release 0; } }
acquire 1; [1] = 1; release 1;
