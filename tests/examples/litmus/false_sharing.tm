# Each node counts in a word of its own, and all these words stand on one page. Nothing is lost: changes are merged word by word.
words 16;  #: words 0 15 count
locks 0;
while k < 3 {
    x = [me];
    [me] = x + me + 1;
    barrier;
    k = k + 1;
}
x = [0];
y = [nodes - 1];
print x;
print y;
