words 1; locks 0;
[0] = me + 1;
barrier;
x = [0];
y = [0];
print x;
print y;
