shared a;
lock b, a;
