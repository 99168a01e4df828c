words 640; locks 10;
while t < 6 {
  k = 0;
  while k < 10 {
    l = (k + me) % 10;
    acquire l; x = [l * 64]; [l * 64] = x + k; release l;
    k = k + 1;
  }
  barrier;
  t = t + 1;
}
k = 0;
while k < 10 { x = [k * 64]; print x; k = k + 1; }
