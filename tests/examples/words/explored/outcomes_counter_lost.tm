words 2;
locks 0;
x = [0];
[0] = x + 1;
barrier;
y = [0];
print y;
