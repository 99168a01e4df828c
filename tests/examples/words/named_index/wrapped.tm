nodes 2;
shared a[2][32768];
for i in 0..2 {
    print i, a[i][0 - 1];
}
