# Values have 64 bits and no sign: sums, differences and products wrap. Division cuts off, `*`, `/` and `%` bind closer than
# `+` and `-`, those closer than a comparison, and a comparison gives 1 or 0.
words 1;
locks 0;
print 0 - 1;
print 7 / 2 * 2 + 7 % 2 == 7;
