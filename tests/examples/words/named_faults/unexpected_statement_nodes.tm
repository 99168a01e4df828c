nodes 1;
x = 2;
nodes = 3;
