const A = 4;
print (A + 1) * me, me * (A - 1) + A * 2, (A < 5) + me, nodes - (A == 4);
