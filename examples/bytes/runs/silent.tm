# A write that changes no value: its interval names the page, and its changes are none.
words 1; locks 1;
if me == 0 {
    acquire 0;
    [0] = 0;
    release 0;
}
barrier;
x = [0];
print x;
