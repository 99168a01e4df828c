fn f(k) = k;
print k;
