class A {
  _m() {}
  static var _m;
}

main() {}
