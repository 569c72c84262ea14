f(a, b) {
  a is int;
  a as C<int>;
  a is! C;
  a == b;
}
class C<T> {}
main() {}
