# Two accounts, words 0 and 1, with a lock each. Node 0 moves money one way, node 1 the other way, and each takes the lock of the
# account that it moves from first.
words 2;  #: words 0 1 account
locks 2;  #: lock 0 guard_0
if me == 0 { [0] = 100; [1] = 100; }  #: lock 1 guard_1
barrier;
if me < 2 {
    acquire me;
    acquire 1 - me;
    x = [me];
    y = [1 - me];
    [me] = x - 10;
    [1 - me] = y + 10;
    release 1 - me;
    release me;
}
barrier;
x = [0];
y = [1];
print x + y;
