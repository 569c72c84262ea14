class C {
  C(a);
  C.n(b) : this(b);
}
main() {}
