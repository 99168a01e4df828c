words 4; locks 2;
#: word 3 a
#: word 4 b
#: words 2 1 c
#: words 1 4 d
#: words 1 1 e
#: lock 1 f
#: lock 2 g
#: lock 18446744073709551616 h
