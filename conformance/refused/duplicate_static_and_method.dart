class A {
  static m() {}
  m() {}
}

main() {}
