words 26; locks 6; #: words 0 23 grid 3 4
#: locks 1 4 fork 2
[0] = 1; [11] = 2; [12] = 3; [23] = 4; acquire 1; acquire 4; acquire 0;
