# Two nodes write a word each, and two more read both words, in two orders (known as IRIW). On one flat memory the readers cannot
# disagree on which write came first.
words 2;  #: words 0 1 written
locks 0;
if me == 0 { [0] = 1; }
if me == 1 { [1] = 1; }
if me == 2 { x = [0]; y = [1]; print x; print y; }
if me == 3 { y = [1]; x = [0]; print y; print x; }
