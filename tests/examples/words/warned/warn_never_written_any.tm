words 4; locks 2;
x = [1]; print x; [me] = 1;