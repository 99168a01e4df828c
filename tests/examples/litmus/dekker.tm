# Each node says that it wants to enter, and enters if the other does not (the heart of Dekker's algorithm). Word 2 counts who entered.
words 3;  #: words 0 1 wants
locks 0;  #: word 2 entered
[me] = 1;
other = [1 - me];
if other == 0 {
    n = [2];
    [2] = n + 1;
}
barrier;
n = [2];
print other;
print n;
