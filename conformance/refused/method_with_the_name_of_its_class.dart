class A {
  void A() {}
}

main() {}
