words 3; locks 1;  #: word 0 best
b = [0];
if b < me + 1 {
  acquire 0;
  b = [0];
  if b < me + 1 { [0] = me + 1; }
  release 0;
}
c = [0];
ok = 1 / (c >= me + 1);
