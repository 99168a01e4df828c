words 4; locks 2;
acquire 0; i = 0; while i < 2 { barrier; release 0; acquire 0; i = i + 1; } if i { barrier; } release 0;
acquire 1; while i < 3 { if i { barrier; } i = i + 1; } release 1;