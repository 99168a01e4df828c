# a comment, then the head on two lines
words
2; locks 1;
x = 1; y = 2;
if x == 1 {
  if
    y == 3 { print 0; }
  else {
    [0]
      = 4; z
      = [0];
  }
} else { print 1; }
while
  k < 2 {
  k = k + 1; }
acquire
  0; release 0;
barrier
;
print (x
  + y);


