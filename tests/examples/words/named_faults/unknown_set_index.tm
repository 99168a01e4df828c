nodes 1;
a[0] = 1;
