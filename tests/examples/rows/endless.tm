words 1; locks 0; while 1 { x = x + 1; }
