class M {
  m() => super.toString();
}

class C extends Object with M {}

main() {}
