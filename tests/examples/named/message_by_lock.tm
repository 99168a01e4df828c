# Each look at the flag is under a lock. Once node 1 sees the flag it sees the message too.
nodes 2;
shared message, flag;
lock mutex;

if me == 0 {
    with mutex {
        message = 42;
        flag = 1;
    }
} else {
    seen = 0;
    while not seen {
        with mutex {
            seen = flag;
        }
    }
    print message;
}
