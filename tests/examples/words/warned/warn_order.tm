words 4; locks 2;
#: nothing
[9 / 0] = 1; acquire 2 - 2; acquire 0; while x { y = 1; }