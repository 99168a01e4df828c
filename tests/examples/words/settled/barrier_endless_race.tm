words 3; locks 0;
while 1 {
  x = [me];
  if x == 1 { [2] = 1; }
  [me] = 1;
  barrier;
}
