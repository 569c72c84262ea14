class S {
  S.named();
}

class A extends S {}

main() {}
