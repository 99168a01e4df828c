words 130;
locks 0;
if me == 0 {
  while k < 9 {
    [k * 2] = 1;
    k = k + 1;
  }
  [128] = 1;
}
barrier;
