nodes 1;
locks = 3;
