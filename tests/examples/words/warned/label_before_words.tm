#: word 0 a
#: word 1 b
words 1; locks 0;