shared a, a;
x = 1 +;
