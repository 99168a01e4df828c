nodes 16;
