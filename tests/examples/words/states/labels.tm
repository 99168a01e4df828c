#: word 0 count
#:words 1 3 buffer
#: lock 1 mutex # no
#: lock 1 mutex
#: word 0 again
words 5; locks 2; #: word 4 flag
x = 1;
