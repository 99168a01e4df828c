fn f(k) = k * f(k - 1);
