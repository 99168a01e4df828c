shared a;
const A = a;
