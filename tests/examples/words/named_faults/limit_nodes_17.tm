shared a;
nodes
17;
