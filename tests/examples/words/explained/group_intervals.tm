words 1;
locks 2;
while k < 3 {
  acquire me;
  [0] = k;
  release me;
  k = k + 1;
}
