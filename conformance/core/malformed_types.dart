f(a) {
  a is X;
  a as X;
  new X(a);
  new X.n(a);
  new C.n(a);
  new C(a);
  new dynamic(a);
  try {
  } on X {
  }
}
class C {
  C.k();
}
main() {}
