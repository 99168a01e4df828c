nodes 1;
x = 1; shared_ = 0;
print not x, not not x, not x == 1, not (x + 1), not me < nodes;
