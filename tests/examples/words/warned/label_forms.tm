words 4; locks 2;
#:
#: word
#:word 0
#: word 0 a b
#: word x a
#: Word 0 a
#: word -1 a
#: words 0 a
#: words 0 1 2 a
#: word 0 print
#: word 0 me
#: word 0 3x
#: word 0 a-b
#: word 0 a[0]
#: lock 0 locks
#: word 0 a #
# : word 0 a
##: word 0 a
 # word 0 a
