shared a,
 b;
lock b;
