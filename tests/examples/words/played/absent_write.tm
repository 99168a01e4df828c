words 64; locks 0;
if me == 1 { [1] = 11; }
barrier;
[me * 10] = me + 1;
barrier;
x = [0]; y = [10]; z = [1];
print x; print y; print z;
