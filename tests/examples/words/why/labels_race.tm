#: word 0 count
#:words 1 3 buffer
#: lock 0 mutex # no
#: lock 0 mutex
#: word 0 again
#: word 9 far
#: word 3 inside
words 5; locks 2; #: word 4 flag
if me == 0 {
  acquire 0;
  [4] = 1;
} else {
  x = [4];
}
