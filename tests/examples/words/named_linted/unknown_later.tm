shared a[SIZE];
const SIZE = 8;
