nodes 1;
x = 1;
if x { print 1; } else { if x { print 2; } print 3; }
