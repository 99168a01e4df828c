# Node 1 asks for the lock while node 0 goes on after it gave it back. It is told what node 0 did up to the release, and
# not that it wrote word 1 afterwards: it reads 1, and then 0.
words 2;  #: word 1 flag
locks 1;
if me == 0 {
    acquire 0;
    [0] = 1;
    release 0;
    [1] = 2;
} else {
    acquire 0;
    x = [0];
    y = [1];
    release 0;
    print x;
    print y;
}
