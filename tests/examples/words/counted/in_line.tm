words 1;
locks 1;
if me > 0 {
  acquire 0;
  x = [0];
  [0] = x + 1;
  release 0;
  print x;
}
