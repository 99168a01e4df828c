words 4; locks 2;
if x === 1 { }