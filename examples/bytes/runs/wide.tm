# Pages of 256 words: changes at both ends of a page, a page fetched whole with changes made since, and a last page that is not full.
words 600; locks 0;
if me == 0 {
    [0] = 1;
    [255] = 2;
    [256] = 3;
    [599] = 4;
}
barrier;
if me == 1 {
    x = [255];
    [254] = x + 10;
}
barrier;
if me == 1 {
    [1] = 5;
    [253] = 6;
}
barrier;
y = [599];
z = [254];
x = [253];
print x + y + z;
