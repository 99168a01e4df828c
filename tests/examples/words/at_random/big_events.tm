words 32;
locks 4;
while k < 3 {
  acquire (me + k) % 4;
  x = [(me + k) % 4];
  [(me + k) % 4] = x + 1;
  release (me + k) % 4;
  barrier;
  y = [(me * 2) % 4];
  s = s + y;
  barrier;
  k = k + 1;
}
print s;
