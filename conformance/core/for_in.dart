f(a) {
  for (var x in a) x;
  for (a in a) a.m();
}
main() {}
