lock m[2];
x = 0;
with m[x]
{

  print 1;

}
print 2;
