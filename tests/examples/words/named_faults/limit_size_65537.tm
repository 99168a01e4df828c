shared a[65537];
