words 1;
locks 1;
if me == 0 {
  acquire 0;
  [0] = 1;
  release 0;
} else {
  while k < 3 {
    acquire 0;
    release 0;
    k = k + 1;
  }
  x = [0];
}
