words 1; locks 1;
while i < 300000 { i = i + 1; }
acquire 0;
x = [0];
[0] = x + i;
release 0;
