shared s;
for (i = 0; i < 10; i += 1) { s = i; }
