nodes 2;
if 1 { };
