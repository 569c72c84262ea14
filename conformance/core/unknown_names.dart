f(a) {
  x;
  x = a;
  x(a);
}
main() {}
