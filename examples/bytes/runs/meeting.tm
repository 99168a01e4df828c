# Nodes write different words of one page, and meet at barriers.
words 100; locks 0;
[me] = 10 + me;
[64 + 2 * me] = 20 + me;
barrier;
x = [(me + 1) % nodes];
y = [64 + 2 * ((me + 2) % nodes)];
print x * 100 + y;
barrier;
if me == 0 {
    [99] = x;
}
barrier;
x = [99];
print x;
