shared a[2][(0)];
