shared a[3], s;
x = s; x = a[1]; x = a[x]; x = (s); x = ((a[x]));
