const A = 1;
const B = 2;
const A = 1;
