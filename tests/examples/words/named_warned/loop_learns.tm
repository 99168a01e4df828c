shared flag, a[2];
x = 0;
while flag == 0 { }
while a[x] == 0 { x = 1 - x; }
flag = 1; a[0] = 1;
while not flag and a[1] { }
