words 26; locks 6; #: words 0 23 grid 3 4
#: words 24 25 pair 1 2 1
#: locks 1 4 fork
[0] = 1;
