nodes 16;
shared a[16];
a[me] = me;
