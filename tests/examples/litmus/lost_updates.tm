# Each node adds 1 to word 0, with no lock: all but one addition may be lost. Compare examples/counter.tm.
words 1;  #: word 0 count
locks 0;
x = [0];
[0] = x + 1;
barrier;
y = [0];
print y;
