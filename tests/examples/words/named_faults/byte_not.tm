shared a;
x = !a;
