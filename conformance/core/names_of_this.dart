class C<T> {
  var a;
  f() {
    a;
    a = 1;
    a(2);
    x;
    x = 3;
    x(4);
    T;
  }
}
main() {}
