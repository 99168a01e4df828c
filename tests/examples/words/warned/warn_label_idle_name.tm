words 4; locks 2;
#: word 9 flag
print flag;