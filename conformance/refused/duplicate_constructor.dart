class A {
  A();
  A(x);
}

main() {}
