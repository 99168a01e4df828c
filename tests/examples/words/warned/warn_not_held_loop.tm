words 4; locks 2;
i = 0; while i < 2 { if i { release 0; } acquire 0; i = i + 1; } release 0;
acquire me; release 1; release 1;