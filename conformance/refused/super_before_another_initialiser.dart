class A {
  var x;
  A() : super(), x = 1;
}

main() {}
