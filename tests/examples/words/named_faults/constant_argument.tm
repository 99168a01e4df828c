fn f(k) = 1;
const A = f(
me);
