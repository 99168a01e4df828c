words 2; locks 0;
n = 2;
while n > 0 {
  m = m + n;
  n = n - 1;
}
