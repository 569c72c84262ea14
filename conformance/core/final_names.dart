final v = 1;
get g => 1;
class C {}
f() {
  final a = 2;
  a = 3;
  v = 4;
  f = 5;
  g = 6;
  C = 7;
}
main() {}
