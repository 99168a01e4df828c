words 2; locks 1;
[1] = [0];
