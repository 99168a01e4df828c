words 3;
locks 1;
if me == 0 {
  acquire 0; [0] = 1; [2] = 5; release 0;
  acquire 0; [0] = 3; release 0;
}
barrier;
x = [0];
