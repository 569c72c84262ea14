class A {
  A() {
    if (true) return 1;
  }
}

main() {}
