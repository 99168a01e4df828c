# Node 0 writes the word that node 1 reads, and nothing orders the two. The plain machine has one memory, so there node 1
# reads what was written last; a node with its own copy must read 0, since nothing tells it of the write.
words 1;
locks 0;
if me == 0 {
    [0] = 5;
} else {
    x = [0];
    print x;
}
