# Peterson's algorithm, with at most ten looks: word 0 and 1 say who wants to enter, word 2 whose turn it is, word 3 counts.
words 4;  #: words 0 1 wants
locks 0;  #: word 2 turn
[me] = 1;  #: word 3 count
[2] = 1 - me;
waits = 1;
while waits == 1 {
    wants = [1 - me];
    turn = [2];
    waits = (wants == 1) * (turn == 1 - me);
    looks = looks + 1;
    if looks == 10 {
        waits = 2;
    }
}
n = [3];
[3] = n + 1;
[me] = 0;
print waits;
barrier;
n = [3];
print n;
