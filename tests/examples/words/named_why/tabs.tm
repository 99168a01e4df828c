shared a[2], b;
x = (  a[ 0 ]
	+ a[# one
# two
 1 ] or b ) + 1;
