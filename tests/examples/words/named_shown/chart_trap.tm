shared a[3];
x = a[2];
assert
    x == 1;
