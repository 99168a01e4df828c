words 1;
locks 0;
barrier;
if me == 0 {
  barrier;
}
