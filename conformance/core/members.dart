f(a, b) {
  a.x;
  a.x = b;
  a.m(b, n: 1);
}
main() {}
