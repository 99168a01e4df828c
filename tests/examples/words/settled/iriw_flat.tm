words 2; locks 0;
if me < 2 {
  [me] = 1;
} else {
  x = [me - 2];
  y = [3 - me];
  print x;
  print y;
}
