g(a) => a;
f(a) {
  g(a);
  a(1);
  (b) => b;
}
main() {}
