f(a, b) {
  a ? b : 1;
  (a);
}
main() {}
