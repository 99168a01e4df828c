# Sixteen nodes, the most that there are; the last one reads what all have written.
words 16; locks 1;
[me] = me * me;
barrier;
if me == nodes - 1 {
    x = [3];
    y = [14];
    print x + y;
}
