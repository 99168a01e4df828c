const A = me + 1;
