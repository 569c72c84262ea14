class C<T extends num> {
  C(a);
}
f() => new C<int>(2);
main() {}
