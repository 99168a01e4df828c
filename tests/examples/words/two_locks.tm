words 2;
locks 2;
if me == 0 {
  acquire 0;
  acquire 1;
  release 1;
  release 0;
} else {
  acquire 1;
  acquire 0;
  release 0;
  release 1;
}
