# Nodes stand in line for a lock: one asks while another holds it, and one while another still waits for it.
words 3; locks 2;
acquire 1;
x = [0];
[0] = x * 10 + me + 1;
y = me * me;
y = y + 1;
[1] = y;
release 1;
acquire 0;
x = [2];
[2] = x + 1;
release 0;
acquire 1;
x = [0];
release 1;
print x;
