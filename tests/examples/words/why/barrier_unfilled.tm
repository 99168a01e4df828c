words 1;
locks 0;
if me == 0 {
  barrier;
}
