class C<T> {
  T value;
  C(this.value);
}
main() => new C<int>(1);
