class B {
  B(a);
  B.n();
}
class C extends B {
  C(b) : super(b);
  C.m() : super.n() {}
}
main() {}
