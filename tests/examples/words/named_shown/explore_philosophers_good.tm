nodes 2;
const EAT = 1;
shared meals;
lock fork[2], count;
fn right(k) = (k + 1) % nodes;
for t in 0..EAT {
    with fork[me * right(me) / nodes] {
        with fork[1 - me * right(me) / nodes] {
            with count { meals += 1; }
        }
    }
}
barrier;
assert meals == EAT * nodes;
print meals;
