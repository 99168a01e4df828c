# Two accounts with a lock each, and no word on how many nodes there are. Each takes the lock of the account that it moves from first.
shared account[2];
lock guard[2];

if me == 0 {
    account[0] = 100;
    account[1] = 100;
}
barrier;
if me < 2 {
    with guard[me] {
        with guard[1 - me] {
            account[me] -= 10;
            account[1 - me] += 10;
        }
    }
}
barrier;
print account[0] + account[1];
