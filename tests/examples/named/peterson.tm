# Peterson's algorithm, with at most ten looks: who wants to enter, whose turn it is, and a count of those who entered.
nodes 2;
const LOOKS = 10;
shared wants[2], turn, count;

wants[me] = 1;
turn = 1 - me;
waits = 1;
looks = 0;
while waits == 1 {
    waits = wants[1 - me] == 1 and turn == 1 - me;
    looks += 1;
    if looks == LOOKS {
        waits = 2;
    }
}
count += 1;
wants[me] = 0;
print waits;
barrier;
print count;
