words 1;
locks 0;
if me == 0 {
  x = [0];
} else {
  y = [0];
  [0] = 2;
  [0] = 3;
}
