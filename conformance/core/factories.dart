class C<T> {
  factory C.m(a) => a;
}
main() {}
