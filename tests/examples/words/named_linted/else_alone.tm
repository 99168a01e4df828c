nodes 2;
else { }
