words 1;
locks 1;
if me == 0 {
  acquire 0;
  [0] = 1;
  release 0;
  [0] = 2;
} else {
  acquire 0;
  x = [0];
}
