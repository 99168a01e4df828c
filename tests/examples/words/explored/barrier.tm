words 4; locks 0;
while k < 3 {
  if me == 0 { [k] = 10 + k; }
  barrier;
  if me > 0 { x = [k]; s = s + x; }
  k = k + 1;
}
print s;
