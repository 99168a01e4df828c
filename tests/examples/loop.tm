# A loop with no end. Each condition and each assignment is one of the statements that a node may begin (`--steps`), so the
# node is unfinished when they are used up.
words 1;
locks 0;
while 1 {
    x = x + 1;
}
