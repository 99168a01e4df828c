words 1; locks 2;
if me == 0 {
  acquire 1;
  barrier;
} else {
  release 1;
}
