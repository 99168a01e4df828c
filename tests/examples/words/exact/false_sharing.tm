words 64; locks 0;
x = [me];
[me] = x + me + 1;
barrier;
y = [nodes - 1 - me];
print y;
