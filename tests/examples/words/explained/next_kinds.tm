words 2;
locks 2;
if me == 0 { x = [1]; }
if me == 1 { [1] = 4; }
if me == 2 { acquire 1; release 1; }
if me == 3 { x = 1; }
if me == 4 { acquire 1; }
if me == 5 { [2] = 0; }
