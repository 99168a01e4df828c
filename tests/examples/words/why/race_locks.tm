words 1;
locks 3;
if me == 0 {
  acquire 0;
  acquire 2;
  [0] = 1;
} else {
  acquire 1;
  [0] = 2;
  release 1;
}
