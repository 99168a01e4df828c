lock m[2];
acquire m;
