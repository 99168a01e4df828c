words 1; locks 1;
while t < 2 {
  acquire 0; x = [0]; [0] = x * 2 + 1; release 0;
  barrier;
  y = [0];
  barrier;
  acquire 0; [0] = y; release 0;
  barrier;
  t = t + 1;
}
print y;
