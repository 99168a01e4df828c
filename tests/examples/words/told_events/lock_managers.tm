words 2; locks 3;
acquire 2; x = [0]; [0] = x + 1; release 2;
acquire 1; y = [1]; [1] = y + 1; release 1;
if y == 2 { z = 1 / (y - 2); }
