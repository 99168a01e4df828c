shared a = 3;
