class C<T> {
  m() {
    this;
    C;
    T;
  }
}
main() {}
