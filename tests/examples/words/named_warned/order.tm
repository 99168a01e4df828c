shared a, b;
unused = a / 0 + b; other = 1 / 0;
