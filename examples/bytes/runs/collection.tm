# A collection at a barrier, in which a node that had no part in a page loses its copy and fetches it whole later.
words 200; locks 1;
if me == 0 {
    [3] = 18446744073709551615;
    [63] = 1;
}
if me == 1 {
    [128] = 7;
    [130] = 8;
}
barrier;
acquire 0;
x = [150];
[150] = x + 1;
release 0;
barrier;
x = [3];
y = [130];
z = [150];
print x;
print y + z;
