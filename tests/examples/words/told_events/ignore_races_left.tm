words 2; locks 0;
if me == 0 { [0] = 1; }
if me == 1 { while f == 0 { f = [0]; } x = 1 / (f - 1); }
