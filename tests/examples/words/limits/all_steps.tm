words 1; locks 0; while x < 499999 { x = x + 1; } print x;
