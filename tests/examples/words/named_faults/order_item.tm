shared a[
70000];
