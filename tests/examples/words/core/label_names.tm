shared a_1, Words, lockS[2];
lock x_;
