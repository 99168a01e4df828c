words 1; locks 0; if me == 0 { [0] = 5; } else { x = [0]; print x; }
