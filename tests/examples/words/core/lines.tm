shared a[2],
  b;

x
 =
  a[0]
 + b;
if x
 == 1
{
 print
 x; }
for i in
0..2 {
 b += 1; }
