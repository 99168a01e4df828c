shared a,
 a;
