class A {
  set a(v) {
    var b;
    var b;
  }
}

main() {}
