words 3;
locks 0;
[me] = 1;
x = [me];
