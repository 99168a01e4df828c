nodes 1;
x = 1;
if x { print 1; }
if x { print 2; } else { print 3; }
if x { } else { print 4; }
if x { print 5; } else { }
if x { } else { }
