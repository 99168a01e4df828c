words 2; locks 0;
[1] = 7;
b = [1];
if b - a * 2 {
  print b;
}
