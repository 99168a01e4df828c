words 1; locks 0;
if me == 0 { [0] = 1; [0] = 0; }
if me == 1 { while f == 0 { f = [0]; } }
