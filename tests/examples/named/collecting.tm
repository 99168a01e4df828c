# At the first barrier node 1 keeps three intervals. With `--collect 3` it asks there for a collection: the writers bring
# their copies up to date, all drop what they kept, and who reads a page later fetches a copy whole. Nothing else changes.
nodes 3;
shared value[3];
lock idle, mine;

if me == 1 {
    with mine {
    }
    value[0] = 4;
}
if me == 2 {
    value[2] = 8;
}
barrier;
if me == 0 {
    value[1] = 6;
}
barrier;
print value[0], value[1], value[2];
