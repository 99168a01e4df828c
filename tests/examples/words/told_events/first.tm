words 2; locks 2;
acquire 0;
x = [0];
[0] = x + 1;
if x == 1 { y = 1 / (x - 1); }
release 0;
if x == 0 { while me == 1 { acquire 1; z = [1]; release 1; } }
