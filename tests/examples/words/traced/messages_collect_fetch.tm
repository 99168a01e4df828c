words 2;
locks 0;
if me < 2 { [me] = 1 + me; }
barrier;
x = [0];
y = [1];
print x + y;
