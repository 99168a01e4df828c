words 2; locks 0;
while k < 4 {
  x = [0];
  [0] = x + me + 1;
  barrier;
  k = k + 1;
}
x = [0];
print x;
