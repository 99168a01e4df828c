words 256; locks 0;
while t < 40 {
  [me * 20] = t * 100 + me;
  [me * 20 + 1] = t;
  barrier;
  x = [(me + 1) % nodes * 20];
  y = [(me + t) % nodes * 20 + 1];
  s = s * 3 + x + y;
  barrier;
  t = t + 1;
}
print s;
