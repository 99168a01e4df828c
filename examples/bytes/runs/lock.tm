# A lock passes from node 0 to node 1, and with it what was written under it.
words 2; locks 1;
acquire 0;
x = [0];
[0] = x + 5;
release 0;
print x;
