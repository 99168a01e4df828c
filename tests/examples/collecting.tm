# At the first barrier node 1 keeps three intervals. With `--collect 3` it asks there for a collection: the writers bring
# their copies up to date, all drop what they kept, and who reads a page later fetches a copy whole. Nothing else changes.
words 3;
locks 2;
if me == 1 {
    acquire 1;
    release 1;
    [0] = 4;
}
if me == 2 {
    [2] = 8;
}
barrier;
if me == 0 {
    [1] = 6;
}
barrier;
x = [0];
y = [1];
z = [2];
print x;
print y;
print z;
