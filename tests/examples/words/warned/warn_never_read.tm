words 4; locks 2;
x = 1; if me { x = 2; }
  y = [0];
[0] = 1; z = z;