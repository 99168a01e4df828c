nodes 1;
[0] = 1;
