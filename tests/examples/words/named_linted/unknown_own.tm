const A =
 A;
