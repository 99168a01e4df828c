lock m;
m = 1;
