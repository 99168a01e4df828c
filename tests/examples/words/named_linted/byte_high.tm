nodes 2;
x = ä;
