# Each node adds 1 to the one shared word, under a lock, and reads it after a barrier: all read the number of nodes.
words 1;
locks 1;
acquire 0;
x = [0];
[0] = x + 1;
release 0;
barrier;
y = [0];
print y;
