# Word 0 is the next piece of work, word 1 what all pieces came to. A lock guards both, so each piece is done once.
words 2;  #: word 0 next
locks 1;  #: word 1 total
while mine < 6 {  #: lock 0 mutex
    acquire 0;
    mine = [0];
    [0] = mine + 1;
    if mine < 6 {
        sum = [1];
        [1] = sum + mine * mine;
    }
    release 0;
}
barrier;
sum = [1];
print sum;
