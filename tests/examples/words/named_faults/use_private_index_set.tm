nodes 1;
x = 1;
x[0] = 2;
