nodes 0;
