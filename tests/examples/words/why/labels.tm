#: word 0 count
#:words 1 3 buffer
#: lock 0 mutex # no
#: lock 0 mutex
#: word 0 again
#: word 9 far
#: word 3 inside
words 5; locks 2; #: word 4 flag
acquire 0;
[0] = 1; [1] = 2; [3] = 3; [2] = 4; [4] = 5;
release 0;
