# The same transfers, and both nodes take lock 0 before lock 1.
words 2;  #: words 0 1 account
locks 2;  #: lock 0 guard_0
if me == 0 { [0] = 100; [1] = 100; }  #: lock 1 guard_1
barrier;
if me < 2 {
    acquire 0;
    acquire 1;
    x = [me];
    y = [1 - me];
    [me] = x - 10;
    [1 - me] = y + 10;
    release 1;
    release 0;
}
barrier;
x = [0];
y = [1];
print x + y;
