class A {
  operator +(x) => 1;
  operator +(y) => 2;
}

main() {}
