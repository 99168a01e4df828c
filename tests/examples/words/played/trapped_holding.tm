words 1; locks 2; acquire 0; [0] = me; if me == 1 { x = 1 / 0; } release 0; print me;
