words 4; locks 1;
[me] = 1; [me] = 2;
acquire 0; x = [3]; [3] = 1; release 0;
y = 1 / (x == 0);
[me] = 3;
