words 1;
locks 1;
acquire 0;
if me == 0 {
  [0] = 0;
} else {
  x = [0];
}
release 0;
print 1;
