lock m[60], n[5];
