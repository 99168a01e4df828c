words 2; locks 0;
if me == 0 { [0] = 1; }
if me == 1 { [1] = 5; [0] = 2; }
if me == 2 {
  y = 1; y = 2; y = 3; y = 4; y = 5; y = 6; y = 7;
  y = [1];
}
