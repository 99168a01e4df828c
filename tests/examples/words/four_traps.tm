words 1;
locks 1;
if me == 0 { [1] = 1; }
if me == 1 { release 0; }
if me == 2 { x = 1 / 0; }
print me;
