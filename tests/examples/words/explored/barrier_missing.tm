words 1;
locks 0;
while k < 2 {
  if me == 0 { [0] = k; }
  barrier;
  if me == 1 { x = [0]; }
  k = k + 1;
}
