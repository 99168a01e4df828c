# Each node reads the other's word and then writes its own (known as load buffering). No memory that keeps lazy reading lets both read 1.
words 2;  #: words 0 1 flag
locks 0;
x = [1 - me];
[me] = 1;
print x;
