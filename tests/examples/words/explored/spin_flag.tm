words 2;
locks 1;
if me == 0 {
  acquire 0;
  [0] = 7;
  [1] = 1;
  release 0;
} else {
  while f == 0 {
    acquire 0;
    f = [1];
    release 0;
  }
  x = [0];
  print x;
}
