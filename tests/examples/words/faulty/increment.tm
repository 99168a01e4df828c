words 2; locks 1;
while i < 4 {
    i++;
}
