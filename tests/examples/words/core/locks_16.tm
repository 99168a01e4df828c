const N = 16;
lock first, fork[N];
left = me;
right = (me + 1) % N;
acquire fork[left]; acquire fork[right];
release fork[right]; release fork[left];
acquire fork[15]; release fork[15]; acquire first; release first;
