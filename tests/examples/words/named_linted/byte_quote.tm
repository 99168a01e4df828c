nodes 2;
print "hello";
