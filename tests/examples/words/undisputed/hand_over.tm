words 3; locks 1;
acquire 0; t = [0]; [0] = t + 1; release 0;
if t == 0 { [1] = 1; }
if t == 2 { [1] = 2; }
