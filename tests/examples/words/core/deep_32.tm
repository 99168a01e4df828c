nodes 1;
x = 1;
if x { if x { if x { if x { if x { if x { if x { if x { if x { if x { if x { if x { if x { if x { if x { if x { if x { if x { if x { if x { if x { if x { if x { if x { if x { if x { if x { if x { if x { if x { if x { print (x + 1) * 2; } } } } } } } } } } } } } } } } } } } } } } } } } } } } } } }
