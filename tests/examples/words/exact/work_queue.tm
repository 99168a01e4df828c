words 4; locks 1;
while go == 0 {
  acquire 0;
  h = [0];
  if h < 3 { [0] = h + 1; }
  release 0;
  if h < 3 { [1 + h] = me + 1; } else { go = 1; }
}
barrier;
a = [1]; b = [2]; c = [3];
print a * 100 + b * 10 + c;
