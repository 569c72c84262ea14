var v;
get g => 1;
set s(a) {}
class C {}
f(a) {
  a(1);
  v(2);
  g(3);
  C(4);
  s(5);
  x(6);
}
main() {}
