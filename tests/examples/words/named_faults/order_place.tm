lock m;
x = m + zzz;
