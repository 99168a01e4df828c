# Each node adds its number behind the digits.
words 1; locks 1;
acquire 0;
x = [0]; [0] = x * 10 + me + 1; print x;
release 0;
