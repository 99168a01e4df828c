# words 1; locks 1;

 	# nodes
shared a; # const
a = 1;
