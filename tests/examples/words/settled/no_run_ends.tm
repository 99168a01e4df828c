words 1; locks 1;
while f == 0 {
  acquire 0;
  f = [0];
  release 0;
}
print f;
