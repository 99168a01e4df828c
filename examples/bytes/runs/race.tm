# Two nodes race for a word, and a third reads what neither orders.
words 2; locks 1;
if me < 2 {
    [0] = me + 1;
    acquire 0;
    [1] = me + 1;
    release 0;
}
barrier;
x = [0];
y = [1];
print x;
print y;
