class A {
  static m() => this;
}

main() {}
