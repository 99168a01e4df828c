words 65536; locks 0;
base = me * 4096;
while t < 3 {
  i = 0;
  while i < 4096 { [base + i] = t * 100000 + me * 5000 + i; i = i + 97; }
  barrier;
  i = 0; s = 0;
  from = (me + t + 1) % nodes * 4096;
  while i < 4096 { x = [from + i]; s = s * 31 + x; i = i + 97; }
  print s;
  barrier;
  t = t + 1;
}
