words 4; locks 0;
while 1 {
  x = [me];
  [me] = 1 - x;
  barrier;
}
