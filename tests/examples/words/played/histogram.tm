words 140; locks 4;
while i < 6 {
  b = (i * 7 + me * 3) % 4;
  acquire b; x = [b * 40]; [b * 40] = x + 1; release b;
  i = i + 1;
}
barrier;
i = 0;
while i < 4 { x = [i * 40]; print x; i = i + 1; }
