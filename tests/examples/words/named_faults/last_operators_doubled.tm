fn d(k) = k + k;
nodes 1;
x = 1;
y = 2;
x = d(d(d(d(d(d(d(d(d(d(d(d(d(d(d(d(d(d(d(d(d(d(d(d(d(d(d(d(d(d(y))))))))))))))))))))))))))))));
