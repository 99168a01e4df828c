lock m;
shared s;
lock k[2][2];
shared t[2][2];
t[0][1] = s;
