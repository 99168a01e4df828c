words 1; locks 0;
while t < 3 { x = [0]; [0] = x + me + 1; barrier; t = t + 1; }
x = [0];
print x;
