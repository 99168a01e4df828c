const _A = 1;
