words 2; locks 0;
go = 1;
while go {
  x = [me];
  if x == 30 { go = 0; }
  [me] = x + 1;
}
print x;
