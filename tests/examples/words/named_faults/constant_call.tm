fn f(k) = k + me;
const A = 1 +
f(1);
