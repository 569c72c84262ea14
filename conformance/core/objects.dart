class C<T> {
  C(a);
  C.n();
  factory C.m() => new C(1);
}
f() {
  new C(2);
  new C<int>.n();
  new C.m();
}
main() {}
