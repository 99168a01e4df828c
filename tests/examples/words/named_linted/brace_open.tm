nodes 2;
if 1 {
 x = 1;
