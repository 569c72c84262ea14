class S {
  S.k(a, [b = 1]);
}
class M {
  var x = 2;
}
class C extends S with M {
  C() : super.k(3);
}
main() {}
