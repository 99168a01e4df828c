nodes 2;
x = 1;
if x { }
else if x == 0 { }
else if x == 1 { }
else if x == 2 { }
else if x == 3 { }
else if x == 4 { }
else if x == 5 { }
else if x == 6 { }
else if x == 7 { }
else if x == 8 { }
else if x == 9 { }
else if x == 10 { }
else if x == 11 { }
else if x == 12 { }
else if x == 13 { }
else if x == 14 { }
else if x == 15 { }
else if x == 16 { }
else if x == 17 { }
else if x == 18 { }
else if x == 19 { }
else if x == 20 { }
else if x == 21 { }
else if x == 22 { }
else if x == 23 { }
else if x == 24 { }
else if x == 25 { }
else if x == 26 { }
else if x == 27 { }
else if x == 28 { }
else if x == 29 { }
else if x == 30 { }
else if x == 31 { }
else if x == 32 { }
