shared s;
falsf = 1;
x = false;
