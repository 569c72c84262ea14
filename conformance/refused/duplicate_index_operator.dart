class A {
  operator [](x) => 1;
  operator []=(x, y) {}
  operator [](z) => 2;
}

main() {}
