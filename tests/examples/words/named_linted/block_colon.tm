nodes 2;
while 1:
  x = 1;
