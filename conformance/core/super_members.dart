class B {
  var x;
  m(a) {}
}
class C extends B {
  n(a) {
    super.m(a);
    super.x;
    super.x = a;
  }
}
main() {}
