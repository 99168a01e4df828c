nodes 2;
x = !1;
