# The transfers of bank.tm, and both nodes take the first lock before the second.
nodes 2;
shared account[2];
lock guard[2];

if me == 0 {
    account[0] = 100;
    account[1] = 100;
}
barrier;
if me < 2 {
    with guard[0] {
        with guard[1] {
            account[me] -= 10;
            account[1 - me] += 10;
        }
    }
}
barrier;
print account[0] + account[1];
