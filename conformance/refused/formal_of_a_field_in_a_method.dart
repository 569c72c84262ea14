class A {
  var x;
  m(this.x) {}
}

main() {}
