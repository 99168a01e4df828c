words 3;
locks 2;
if me == 1 { acquire 1; release 1; [0] = 4; }
if me == 2 { [2] = 8; }
barrier;
if me == 0 { [1] = 6; }
barrier;
x = [0];
y = [1];
z = [2];
print x;
print y;
print z;
