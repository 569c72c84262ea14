import 'dart:isolate' as p;
var v;
get g => 1;
set s(a) {}
class C {}
f(a) {
  a;
  v;
  g;
  f;
  C;
  s;
  p;
}
main() {}
