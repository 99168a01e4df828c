# Node 1 writes the value that is there already. There is nothing to send, and still the page is named: node 2 reads the right value,
# and the detector would see a race if locks and barriers were left out.
words 1;  #: word 0 value
locks 1;  #: lock 0 mutex
if me == 0 { acquire 0; [0] = 5; release 0; }
barrier;
if me == 1 { acquire 0; [0] = 5; release 0; }
barrier;
if me == 2 { acquire 0; x = [0]; release 0; print x; }
