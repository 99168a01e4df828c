shared s;
x = 1;
if x == 1 { print 1; }
else if x == 2 { print 2; }
else
    if s == 3 { print 3; }
    else { print 4; }
if s { } else if s { } else if s { } else { print s; }
