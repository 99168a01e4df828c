nodes 2;
x = lock + 1;
