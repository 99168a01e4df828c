nodes 3;
const EAT = 1;
shared meals;
lock fork[3], count;
fn right(k) = (k + 1) % nodes;
for t in 0..EAT {
    with fork[me] {
        with fork[right(me)] {
            with count { meals += 1; }
        }
    }
}
barrier;
assert meals == EAT * nodes;
print meals;
