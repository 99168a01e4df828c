words 2;
locks 0;
if me == 0 { a = 1; b = 1; c = 1; [0] = 1; }
if me == 1 { a = 1; [0] = 2; }
if me == 2 { [0] = 3; }
