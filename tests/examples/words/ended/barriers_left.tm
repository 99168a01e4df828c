words 1; locks 0;
while i < 3 {
  if me == 0 { [0] = i; }
  barrier;
  x = [0];
  barrier;
  i = x + 1;
}
