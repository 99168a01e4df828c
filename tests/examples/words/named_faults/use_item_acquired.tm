shared a;
acquire a;
