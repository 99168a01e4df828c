words 4096; locks 64;
while t < 2 {
  k = 0;
  while k < 64 {
    l = (k * 5 + me * 4 + t) % 64;
    acquire l; x = [l * 64]; [l * 64] = x + 1; release l;
    s = s + x;
    k = k + 1;
  }
  t = t + 1;
}
barrier;
k = 0;
while k < 64 { x = [k * 64]; s = s + x; k = k + 1; }
print s;
x = [me * 256];
print x;
