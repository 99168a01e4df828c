# One node alone: it sends the messages of barriers and of a collection to itself.
words 65; locks 1;
acquire 0;
[64] = 3;
release 0;
barrier;
x = [64];
acquire 0;
[0] = x;
release 0;
barrier;
print x;
