words 4; locks 1; # a comment
  x = [0];   [1] = x+1;
	print x;
