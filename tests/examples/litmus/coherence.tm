# Two nodes write one word, with no order between the writes. After a barrier node 0 reads it twice (known as coherence). On one flat
# memory both reads give the same.
words 1;  #: word 0 shared
locks 0;
[0] = me + 1;
barrier;
if me == 0 { x = [0]; y = [0]; print x; print y; }
