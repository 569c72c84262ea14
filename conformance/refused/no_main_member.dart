class A {
  main() {}
  static f() {}
}
