nodes 2;
i = 0;
i++;
