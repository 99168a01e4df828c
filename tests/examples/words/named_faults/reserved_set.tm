nodes 1;
print
_1;
_1 = 2;
