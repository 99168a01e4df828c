# The program of racing.tm with a lock: the two accesses are ordered, whichever comes first, and no race is left.
nodes 2;
shared value;
lock mutex;

with mutex {
    if me == 0 {
        value = 5;
    } else {
        print value;
    }
}
