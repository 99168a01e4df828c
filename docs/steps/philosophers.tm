# Three philosophers: each takes the fork on the left, then the one on the right. They think for different times, so that in the run
# of `sim` nobody starves. `explore` finds an order in which each holds one fork and waits for the other.
nodes 3;
shared eaten[3];
lock fork[3];

for thought in 0..2 * me { }  # think
with fork[me] {
    with fork[(me + 1) % nodes] {
        eaten[me] += 1;
    }
}
