# Node 1 asks for the lock while node 0 goes on after it gave it back. It is told what node 0 did up to the release, and
# not that it wrote the flag afterwards: it reads 1, and then 0.
nodes 2;
shared count, flag;
lock mutex;

if me == 0 {
    with mutex {
        count = 1;
    }
    flag = 2;
} else {
    with mutex {
        x = count;
        y = flag;
    }
    print x, y;
}
