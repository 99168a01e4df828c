words 4; locks 0;
if me == 0 { [0] = 1; [0] = 2; x = [4]; }
if me == 2 { [2] = 1; x = [5]; }
