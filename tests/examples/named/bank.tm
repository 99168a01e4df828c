# Two accounts with a lock each. Node 0 moves money one way, node 1 the other way, and each takes the lock of the account
# that it moves from first.
nodes 2;
shared account[2];
lock guard[2];

if me == 0 {
    account[0] = 100;
    account[1] = 100;
}
barrier;
if me < 2 {
    with guard[me] {
        with guard[1 - me] {
            account[me] -= 10;
            account[1 - me] += 10;
        }
    }
}
barrier;
print account[0] + account[1];
