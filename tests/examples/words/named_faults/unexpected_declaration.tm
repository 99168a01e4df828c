shared a;
a = 1;
lock m;
