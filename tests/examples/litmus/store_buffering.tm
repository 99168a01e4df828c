# Each node writes its own word and then reads the other's. On one flat memory at least one of them reads 1.
words 2;  #: words 0 1 flag
locks 0;
[me] = 1;
x = [1 - me];
print x;
