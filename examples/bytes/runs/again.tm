# Every message comes twice.
words 70; locks 1;
acquire 0;
x = [65];
[65] = x + 1;
release 0;
barrier;
x = [65];
[me] = x + me;
barrier;
y = [(me + 1) % nodes];
print x + y;
