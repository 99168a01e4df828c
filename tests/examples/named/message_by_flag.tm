# Node 0 writes a message and then a flag; node 1 looks at the flag ten times, with no lock. It never sees it: nobody told it.
nodes 2;
const LOOKS = 10;
shared message, flag;

if me == 0 {
    message = 42;
    flag = 1;
} else {
    seen = 0;
    looks = 0;
    while seen == 0 {
        seen = flag;
        looks += 1;
        if looks == LOOKS {
            seen = 2;
        }
    }
    print seen, message;
}
