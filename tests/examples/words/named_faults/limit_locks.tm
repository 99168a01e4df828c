lock m[32], n[32];
lock o;
