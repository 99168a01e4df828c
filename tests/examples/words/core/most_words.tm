shared a[256][256];
a[255][255] = 1;
a[me][nodes] = 2;
