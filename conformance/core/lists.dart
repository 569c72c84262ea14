f(a) {
  [a, 1];
  <int>[a];
}
main() {}
