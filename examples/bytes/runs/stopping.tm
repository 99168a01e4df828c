# Each node stops another way: by one of the five traps, at the end of the text, or without steps.
words 3; locks 2;
[1] = me;
if me == 0 { x = 1 / (me * 2); }
if me == 1 { [me + 2] = 1 + 2; }
if me == 2 { acquire me; }
if me == 3 { acquire 1; acquire 1; }
if me == 4 { release 0; }
if me == 5 { while 1 { x = x + 1; } }
x = [1];
print x;
