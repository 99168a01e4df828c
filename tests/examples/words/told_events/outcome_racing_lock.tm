words 1; locks 2;
if me == 0 { [0] = 1; }
if me == 1 { f = [0]; acquire f; print f; release f; }
