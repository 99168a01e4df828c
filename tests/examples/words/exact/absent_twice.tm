words 1; locks 0;
[0] = me;
barrier;
if me == 1 { [0] = 7; }
barrier;
if me == 2 { x = [0]; print x; [0] = 9; }
barrier;
y = [0];
print y;
