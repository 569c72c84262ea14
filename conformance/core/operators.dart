f(a, b) {
  a + b;
  -a;
  ~a;
  a[b];
  a[b] = 1;
}
main() {}
