int f(int a) {
  int b = a;
  b = a;
  return b;
}
g(a) {
  var b = a;
  b = a;
  return b;
}
main() {}
