words 4; locks 2;
y = x + x * z;
print y; if z { print x; }