# The program of racing.tm with a lock: the two accesses are ordered, whichever comes first, and no race is left.
words 1;
locks 1;
acquire 0;
if me == 0 {
    [0] = 5;
} else {
    x = [0];
    print x;
}
release 0;
