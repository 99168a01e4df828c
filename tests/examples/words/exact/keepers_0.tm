words 128; locks 0;
if me == 1 { [0] = 1; [64] = 1; }
if me == 2 { [0] = 2; }
barrier;
if me == 0 { [64] = 5; }
if me == 2 { [64] = 6; }
barrier;
x = [0];
y = [64];
print x;
print y;
