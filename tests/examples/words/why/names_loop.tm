words 1;
locks 0;
k = 5;
while k < 7 {
  k = k + 1;
}
print k;
