# Node 0 writes a message and then a flag; node 1 looks at the flag ten times, with no lock. It never sees it: nobody told it.
words 2;  #: word 0 message
locks 0;  #: word 1 flag
if me == 0 {
    [0] = 42;
    [1] = 1;
} else {
    while seen == 0 {
        seen = [1];
        looks = looks + 1;
        if looks == 10 {
            seen = 2;
        }
    }
    x = [0];
    print seen;
    print x;
}
