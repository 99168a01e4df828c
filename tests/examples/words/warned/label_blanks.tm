words 4; locks 2;
#:word 0 a
#:	 words 	 01	0002 b 
  acquire 0; release 0; #: lock 0 c
#: word 0 d
