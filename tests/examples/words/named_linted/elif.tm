shared s;
if me == 0 { s = 1; } elif me == 1 { s = 2; }
