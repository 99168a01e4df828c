words 4; locks 0;
v = 6;
i = [3];
i = i + 4;
[i] = v;
