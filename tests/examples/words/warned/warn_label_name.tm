words 4; locks 2;
#: word 1 flag
#: lock 0 mutex
[1] = 1;
print flag; mutex = 1;
#: word 2 x
#: word 2 y
y = 1; print y;