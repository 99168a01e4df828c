shared a;
a = 1 . 2;
