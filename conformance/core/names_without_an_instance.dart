class C<T> {
  var a;
  static g() {
    a;
    T;
    T = 1;
    T(2);
  }
}
main() {}
