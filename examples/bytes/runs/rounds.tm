# Rounds of locks and barriers, with collections: pages get new keepers, and are fetched whole with changes made since.
words 190; locks 2;
while i < 4 {
    if me == i % nodes {
        [10 * i] = i + 1;
        [64 + i] = 100 + i;
    }
    acquire i % 2;
    x = [128];
    [128] = x + me + 1;
    release i % 2;
    barrier;
    if me == (i + 1) % nodes {
        x = [10 * i];
        [189 - i] = x + 7;
    }
    i = i + 1;
}
barrier;
x = [30];
y = [67];
z = [187];
print x + y + z;
