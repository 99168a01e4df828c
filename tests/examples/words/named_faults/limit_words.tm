shared a[65535], b,
c;
