# Each node takes a turn with another lock first, and then adds its number behind the digits.
words 1; locks 2;
acquire 1; release 1;
acquire 0;
x = [0]; [0] = x * 10 + me + 1; print x;
release 0;
