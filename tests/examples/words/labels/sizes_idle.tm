words 26; locks 6;
#: words 0 23 a 5
#: words 0 23 b 0
#: words 0 23 c 65537
#: words 0 23 d x
#: words 20 30 e 11
#: words 5 4 f 2
#: word 0 g 2
#: lock 0 h 2
#: locks 0 5 i 4
#: locks 0 6 j
#: locks 0 0 words
#: words 0 23 k 24
#: words 23 24 l
#: locks 2 3 k
#: locks 2 3 m 2 1
#: lock 3 n
#: words 24 25 o 65536 65536 65536 65536
x = [0]; print x; [0] = 1;
