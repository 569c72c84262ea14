var s = 1;
f(a) {
  a = s;
  s = a;
}
main() {}
