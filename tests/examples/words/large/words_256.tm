words 65536; locks 0;
i = me;
while i < 65536 { [i] = i * 3 + me; i = i + 1009 * nodes; }
barrier;
i = 0;
while i < 65536 { x = [i]; s = s * 7 + x; i = i + 1009; }
print s;
barrier;
if me == 5 { [65535] = s; }
barrier;
x = [65535];
print x;
