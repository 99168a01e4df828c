words 64;
locks 0;
while k < 64 {
  x = [k];
  [k] = x + me;
  k = k + 1;
}
print x;
