words 1; locks 0; if me == 0 { [0] = 4; barrier; [0] = 4; barrier; [0] = 6; barrier; } else { barrier; barrier; barrier; x = [0]; print x; }
