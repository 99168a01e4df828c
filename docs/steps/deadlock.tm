# Two locks, taken in both orders: each node holds the one that the other waits for.
words 1;  #: lock 0 left
locks 2;  #: lock 1 right
if me == 0 {
    acquire 0;
    acquire 1;
    [0] = 1;
    release 1;
    release 0;
} else {
    acquire 1;
    acquire 0;
    [0] = 2;
    release 0;
    release 1;
}
