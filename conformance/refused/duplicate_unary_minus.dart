class A {
  operator -(x) => 1;
  operator -() => 2;
  operator -() => 3;
}

main() {}
