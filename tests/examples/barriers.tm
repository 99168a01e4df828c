# Node 0 makes values and node 1 uses them, in turns that barriers part: what one wrote before a barrier the other reads
# after it. Node 1 prints 1, 4 and 9.
words 1;
locks 0;
while i < 3 {
    i = i + 1;
    if me == 0 {
        [0] = i * i;
    }
    barrier;
    if me == 1 {
        x = [0];
        print x;
    }
    barrier;
}
