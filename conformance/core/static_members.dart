class C {
  static var s;
  static m(a) {}
}
f() {
  C.s;
  C.s = 1;
  C.m(2);
  C.x;
}
main() {}
