words 3;
locks 0;
[2] = me;
x = [1];
[1] = me;
