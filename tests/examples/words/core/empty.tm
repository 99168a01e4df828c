nodes 3;
