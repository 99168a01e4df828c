nodes 2;
int x = 1;
