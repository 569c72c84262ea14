class S {}

class M {}

class N {
  N();
}

class C extends S with M, N {}

main() {}
