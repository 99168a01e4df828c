words 66; locks 3;
while t < 2 {
  i = 0;
  while i < 2 {
    l = (me + i) % 3;
    acquire l; x = [l * 30]; [l * 30] = x + t + 1; release l;
    i = i + 1;
  }
  barrier;
  t = t + 1;
}
x = [0]; y = [30]; z = [60];
print x * 10000 + y * 100 + z;
