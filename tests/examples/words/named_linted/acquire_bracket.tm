lock m;
acquire(m);
