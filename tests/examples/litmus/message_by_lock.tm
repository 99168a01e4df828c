# The same, and each look at the flag is under a lock. Once node 1 sees the flag it sees the message too.
words 2;  #: word 0 message
locks 1;  #: word 1 flag
if me == 0 {  #: lock 0 mutex
    acquire 0;
    [0] = 42;
    [1] = 1;
    release 0;
} else {
    while seen == 0 {
        acquire 0;
        seen = [1];
        release 0;
    }
    x = [0];
    print x;
}
