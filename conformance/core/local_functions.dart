f(a) {
  g(b) => g(a);
  a = 1;
}
main() {}
