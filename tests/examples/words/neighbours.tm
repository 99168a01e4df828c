words 256;
locks 0;
while k < 4 {
  [me * 100] = k;
  barrier;
  x = [me * 100];
  barrier;
  k = k + 1;
}
