words 1; locks 0;
if me == 0 { [0] = 1; } else { while x == 0 { x = [0]; } print x; }
