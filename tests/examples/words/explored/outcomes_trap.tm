words 1;
locks 0;
if me == 0 {
  [0] = 1;
} else {
  x = [0];
  y = 1 / x;
  print y;
}
