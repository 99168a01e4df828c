nodes 1;
else { }
