nodes 2;
x = 1;
if x { } else if me { barrier; }
if me == 0 { barrier; } else { barrier; }
