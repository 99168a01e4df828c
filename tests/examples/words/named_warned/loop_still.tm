nodes 2;
x = 1;
while x { }
while nodes == 3 { x = 2; }
