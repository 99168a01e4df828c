shared a, b[a];
