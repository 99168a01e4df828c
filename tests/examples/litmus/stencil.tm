# Each node owns word me + 1 and replaces it by the sum of its two neighbours, twice. The barrier between reading and writing is missing.
words 18;  #: words 0 17 cell
locks 0;
[me + 1] = me + 1;
barrier;
while k < 2 {
    a = [me];
    b = [me + 2];
    [me + 1] = a + b;
    barrier;
    k = k + 1;
}
x = [me + 1];
print x;
