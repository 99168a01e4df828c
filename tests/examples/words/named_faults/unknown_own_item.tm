shared a[a];
