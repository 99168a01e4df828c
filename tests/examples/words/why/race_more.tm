words 1;
locks 0;
if me == 0 {
  [0] = 1;
} else {
  x = [0];
  [0] = 2;
  y = [0];
}
