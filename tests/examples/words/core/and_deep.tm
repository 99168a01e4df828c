shared s, t;
x = 1;
x = s or (t and (s or (t and x / 2)));
