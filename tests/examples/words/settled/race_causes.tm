words 2; locks 1;
if me == 0 {
  print 1;
  acquire 0;
  [1] = 1;
  release 0;
  print 2;
}
if me > 0 {
  acquire 0;
  x = [1];
  release 0;
  if x == 1 { [0] = me; }
}
