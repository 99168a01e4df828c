# Node 0 makes values and node 1 uses them, in turns that barriers part: what one wrote before a barrier the other reads
# after it. Node 1 prints 1, 4 and 9.
nodes 2;
shared square;

for i in 1..4 {
    if me == 0 {
        square = i * i;
    }
    barrier;
    if me == 1 {
        print square;
    }
    barrier;
}
