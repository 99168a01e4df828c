shared count;
count = 1;
x = conut;
