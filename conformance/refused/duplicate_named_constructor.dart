class A {
  A();
  A.b();
  factory A.b() => new A();
}

main() {}
