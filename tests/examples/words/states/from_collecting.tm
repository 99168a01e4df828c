words 66;
locks 0;
if me == 2 { [65] = 9; }
[me] = 3;
barrier;
x = [2];
