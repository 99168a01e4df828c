words 2; locks 2;
if me % 2 == 0 {
  acquire 0;
  acquire 1;
  x = [0]; y = [1];
  [0] = x - 5; [1] = y + 5;
  release 1; release 0;
} else {
  acquire 1;
  acquire 0;
  x = [0]; y = [1];
  [1] = y - 3; [0] = x + 3;
  release 0; release 1;
}
