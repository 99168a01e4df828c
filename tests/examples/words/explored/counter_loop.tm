words 1; locks 1;
while k < 3 {
  acquire 0;
  x = [0];
  [0] = x + 1;
  release 0;
  k = k + 1;
}
