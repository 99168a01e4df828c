lock m;
x = m;
