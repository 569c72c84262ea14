class A {
  m() {}
  m(x) {}
}

main() {}
