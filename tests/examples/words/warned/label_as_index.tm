words 2; locks 1;  #: word 0 flag
[flag] = 1;
