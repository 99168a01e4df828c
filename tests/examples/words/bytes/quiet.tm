words 2; locks 0;
x = 1;
print x + 18446744073709551614;
[me] = 3;
y = [me];
