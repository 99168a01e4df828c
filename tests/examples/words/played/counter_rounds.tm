words 65; locks 2;
while t < 3 {
  acquire 1; x = [64]; [64] = x + 1; release 1;
  if me == t % nodes { [0] = t; }
  barrier;
  t = t + 1;
}
x = [64]; y = [0];
print x; print y;
