class A {
  var v = 1;
  A(this.v) {}
  get w => v;
  m() { v = 2; }
}

main() {
  var a = new A(5);
  a.w;
  a.v = 3;
  a.m();
  print('all');
}
