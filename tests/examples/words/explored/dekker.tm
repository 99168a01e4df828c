words 3;
locks 0;
[me] = 1;
x = [1 - me];
if x == 0 { y = [2]; [2] = y + 1; }
