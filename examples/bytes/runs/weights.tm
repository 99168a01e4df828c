# One page with changes of some intervals and of two writers, which are applied in the order of their weights.
words 8; locks 2;
if me == 0 {
    acquire 0;
    [0] = 1;
    release 0;
    acquire 1;
    [1] = 2;
    release 1;
    acquire 0;
    [2] = 3;
    release 0;
}
if me == 1 {
    acquire 0;
    x = [0];
    [0] = x + 10;
    [3] = 4;
    release 0;
    [4] = 5;
}
barrier;
x = [0];
y = [2];
z = [4];
print x * 100 + y * 10 + z;
