nodes 2;
shared a;
nodes 3;
