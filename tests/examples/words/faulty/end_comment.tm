words 4; locks 2;
while me { # a comment