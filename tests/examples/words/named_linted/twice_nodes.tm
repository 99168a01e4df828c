nodes 2;
nodes 3;
