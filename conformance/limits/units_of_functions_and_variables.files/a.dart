class A {
  m() {}
}

f() {}

main() {
  var a = new A();
  a.m;
  f;
  var x = 1, y = 2, z = 3;
  var g = () => x + y;
  g = () => x;
  g = () => 1;
  int;
  A;
  print('all');
}
