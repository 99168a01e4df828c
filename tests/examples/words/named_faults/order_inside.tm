shared a[2];
x = a[
5 + zzz];
