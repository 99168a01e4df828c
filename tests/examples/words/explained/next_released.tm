words 1;
locks 1;
if me == 0 {
  acquire 0;
  release 0;
}
acquire 0;
