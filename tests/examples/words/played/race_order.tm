words 3; locks 0;
[2] = me; [0] = 1; barrier; x = [1]; if me == 1 { [1] = 1; } [2] = 7;
