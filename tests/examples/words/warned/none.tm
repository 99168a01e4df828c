words 4; locks 2;
acquire 0;
x = [0];
[0] = x + 1;
release 0;
barrier;
x = [0];
print x;
