nodes 2;
x = 1;
const A = 2;
