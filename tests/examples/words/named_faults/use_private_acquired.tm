nodes 1;
x = 1;
with x { }
