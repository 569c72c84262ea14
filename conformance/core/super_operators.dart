class C extends B {
  f(a) {
    super + a;
    -super;
    super[a];
    super[a] = 1;
    super == a;
  }
}
class B {}
main() {}
