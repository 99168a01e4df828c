words 2;
locks 0;
if me < 2 { [me] = 1 + me; }
barrier;
if me == 2 { x = [0]; print x; }
