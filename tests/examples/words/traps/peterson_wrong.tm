#: words 0 1 flag
#: word 2 turn
#: word 3 inside
words 4; locks 0;
[2] = 1 - me;
[me] = 1;
f = 1; t = 1 - me;
while f * (t == 1 - me) { f = [1 - me]; t = [2]; }
x = [3];
ok = 1 / (x == 0);
[3] = 1;
[3] = 0;
[me] = 0;
