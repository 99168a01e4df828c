# Changes in runs: neighbours share one, and one word that stays as it was begins another.
words 64; locks 0;
if me == 0 {
    [0] = 256;
    [1] = 65536;
    [2] = 1;
    [4] = 2;
    [7] = 3;
    [8] = 4;
    [9] = 0;
    [10] = 5;
    [62] = 6;
    [63] = 18446744073709551615;
}
barrier;
x = [63];
y = [9];
print x + y;
