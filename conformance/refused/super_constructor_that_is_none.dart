class S {
  S.named();
}

class A extends S {
  A() : super();
}

main() {}
