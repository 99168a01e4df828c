nodes 2;
foo 5;
