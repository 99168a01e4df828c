# Each node writes a word of its own, and the words stand on one page: neither write is lost.
words 2;
locks 0;
[me] = 10 + me;
barrier;
x = [0];
y = [1];
print x;
print y;
