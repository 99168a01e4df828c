fn first(k) = k;
x = frist(1);
