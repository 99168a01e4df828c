shared counter;
print cuntre3x;
