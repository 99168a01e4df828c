shared cab, cat;
print car;
