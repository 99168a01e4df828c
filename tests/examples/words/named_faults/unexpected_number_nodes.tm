nodes 1 + 1;
