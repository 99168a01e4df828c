fn f() = 1;
print f;
