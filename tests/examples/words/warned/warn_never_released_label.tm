words 1; locks 1;  #: lock 0 mutex
acquire 0;
x = [0];
[0] = x + 1;
