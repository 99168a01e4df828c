words 3; locks 2;
if me == 0 { acquire 0; [0] = 42; [1] = 1; release 0; }
if me == 1 {
  while f == 0 { acquire 0; f = [1]; release 0; }
  acquire 1; [2] = 1; release 1;
}
if me == 2 {
  while f == 0 { acquire 1; f = [2]; release 1; }
  x = [0];
  print x;
}
