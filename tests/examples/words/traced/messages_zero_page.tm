words 1;
locks 0;
if me == 0 {
  [0] = 9;
  [0] = 0;
}
barrier;
x = [0];
print x;
