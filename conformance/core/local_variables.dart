f(a) {
  var b = a, c;
  b++;
}
main() {}
