words 2;
locks 1;
while k < 2 {
  acquire 0;
  x = [0];
  [0] = x + 1;
  release 0;
  k = k + 1;
}
if x == 3 { [1] = me; }
if x == 2 { y = [1]; }
