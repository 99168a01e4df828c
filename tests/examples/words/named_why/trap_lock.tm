nodes 1;
lock fork[2];
x = 2;
acquire fork[x];
