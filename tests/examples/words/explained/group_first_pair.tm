words 1;
locks 0;
if me == 0 {
  [0] = 1;
  [0] = 2;
} else {
  x = [0];
  [0] = 3;
}
