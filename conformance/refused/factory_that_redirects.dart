class A {
  A.b();
  factory A() = A.b;
}

main() {}
