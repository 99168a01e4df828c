words 1;
locks 1;
if me == 0 {
  acquire 0;
  x = 1 / 0;
}
barrier;
acquire 0;
