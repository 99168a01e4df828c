const SIZE = 3;
SIZE = 4;
