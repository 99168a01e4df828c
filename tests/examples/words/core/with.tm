shared s;
lock m, n[3];
with m { s += 1; }
with n[2] {
    s = 2;

}
with n[me] { with n[(me + 1) % 3] { s += 1; } }
