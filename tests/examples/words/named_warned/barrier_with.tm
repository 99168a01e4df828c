lock m;
with m {
  barrier;
}
