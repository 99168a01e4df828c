words 8; locks 8;
a = me; b = (me + 1) % nodes;
if b < a { c = a; a = b; b = c; }
while i < 2 { acquire a; acquire b; x = [a]; y = [b]; [a] = y + 1; [b] = x + 1; release b; release a; i = i + 1; }
print x + y;
