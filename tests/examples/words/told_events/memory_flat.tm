words 2; locks 1;
if me == 0 {
  [0] = 7;
  acquire 0; [1] = 1; release 0;
}
if me == 1 {
  acquire 0; f = [1]; release 0;
  x = [0];
  print x;
}
