class A {
  var x;
  A(this.x, x);
}

main() {}
