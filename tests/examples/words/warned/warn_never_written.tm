words 4; locks 2;
#: word 1 flag
x = [1]; x = [1]; y = [0]; z = [1 + 1]; print x + y + z; [0] = 1; [5] = 2; u = [6]; print u;