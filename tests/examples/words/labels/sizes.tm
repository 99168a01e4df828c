words 26; locks 6; #: words 0 23 grid 3 4
#: words 24 25 pair
#: locks 1 4 fork 2
#: lock 0 mutex
#: lock 5 last
[me] = 1; [12] = 2; [17] = 3; [23] = 4; [25] = 5;
acquire 4; release 4; acquire 5;
x = [13]; print x;
