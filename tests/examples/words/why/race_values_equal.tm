words 1;
locks 0;
if me < 2 {
  [0] = 4;
}
barrier;
x = [0];
