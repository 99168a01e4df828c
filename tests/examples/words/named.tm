words 2;
locks 1;
#: word 0 data
#: words 1 1 flag
#: lock 0 mutex
if me == 0 { [1] = 5; }
acquire 0;
[0] = me + 1;
release 0;
x = [1];
print x;
