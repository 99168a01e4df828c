words 1;
locks 1;
acquire me * 0 + 0; release 0;
x = [0]; [0] = me; acquire 0; release 0; [0] = 2;
