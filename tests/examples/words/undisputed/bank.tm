# Transfers between three accounts, the lower lock first, R rounds.
words 3; locks 3;
i = 0;
while i < 2 {
  a = (me + i) % 3; b = (a + 1) % 3;
  lo = a; hi = b;
  if b < a { lo = b; hi = a; }
  acquire lo;
  acquire hi;
  v = [a];
  [a] = (v + 7) % 8;
  v = [b];
  [b] = (v + 1) % 8;
  release hi;
  release lo;
  i = i + 1;
}
