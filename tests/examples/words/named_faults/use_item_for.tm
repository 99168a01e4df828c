shared a;
for a in 0..2 { }
