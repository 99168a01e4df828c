words 1024; locks 16;
while t < 10 {
  p = (me + t) % nodes;
  [p * 64 + me] = t;
  acquire p; x = [p * 64 + 63]; [p * 64 + 63] = x + 1; release p;
  barrier;
  y = [(me * 3 + t) % nodes * 64 + 63];
  s = s * 3 + y;
  t = t + 1;
  barrier;
}
print s;
