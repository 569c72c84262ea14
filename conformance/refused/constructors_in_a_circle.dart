class A {
  A() : this.b();
  A.b() : this();
}

main() {}
