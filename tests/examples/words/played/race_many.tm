words 2; locks 3;
while i < 3 { acquire me; [i % 2] = me; release me; i = i + 1; }
barrier;
x = [0];
print x;
