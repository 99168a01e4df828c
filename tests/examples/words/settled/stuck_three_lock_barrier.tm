words 1;
locks 1;
if me < 2 {
  acquire 0;
  barrier;
  release 0;
} else {
  barrier;
}
