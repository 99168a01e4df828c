shared a[2][
(1 / 0)];
