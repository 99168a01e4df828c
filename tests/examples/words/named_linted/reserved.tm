nodes 2;
_x = 1;
