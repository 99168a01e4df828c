shared a[2];
with a[0] { }
