# Messages overtake one another: the events were chosen at random.
words 130; locks 3;
while i < 3 {
    acquire (me + i) % 3;
    x = [64 * ((me + i) % 3)];
    [64 * ((me + i) % 3)] = x + me + 1;
    release (me + i) % 3;
    i = i + 1;
}
barrier;
acquire 0;
x = [0];
release 0;
y = [64];
z = [128];
print x * 10000 + y * 100 + z;
