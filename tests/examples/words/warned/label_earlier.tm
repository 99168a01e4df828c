words 4; locks 2;
#: words 0 2 a
#: words 2 3 b
#: word 1 c
#: word 3 a
#: lock 0 a
#: lock 0 b
#: lock 0 d
#: lock 1 b
#: word 3 c
