words 1;
locks 0;
if me == 1 {
  [0] = 0;
}
barrier;
