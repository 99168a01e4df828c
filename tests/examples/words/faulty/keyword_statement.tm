words 4; locks 2;
nodes = 4;