class C<T> {
  final int a = 1;
  T b;
  C(this.b);
}
main() {}
