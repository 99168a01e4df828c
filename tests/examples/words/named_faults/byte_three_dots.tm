shared a;
x = 0;
for i in 0...3 { }
