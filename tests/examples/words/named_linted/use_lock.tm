lock mutex;
print mutex + 1;
