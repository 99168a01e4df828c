words 2;
locks 2;
x = me;
print x;
if me == 0 {
  acquire 1;
  [1] = 18446744073709551615;
  release 1;
}
barrier;
y = [1];
print y;
if me == 1 {
  z = 5 % 0;
}
