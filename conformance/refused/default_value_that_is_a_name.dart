class A {
  m({x: 1, y: n}) => x + y;
}

var n = 2;

main() {}
