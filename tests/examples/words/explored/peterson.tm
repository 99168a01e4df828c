# words 0, 1: flags; word 2: turn; word 3: the counter
words 4; locks 0;
[me] = 1;
[2] = 1 - me;
f = 1; t = 1 - me;
while f + (t == 1 - me) == 2 {
  f = [1 - me];
  t = [2];
}
x = [3];
[3] = x + 1;
[me] = 0;
