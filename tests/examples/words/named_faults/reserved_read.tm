nodes 1;
print _x;
