get g => 1;
set g(a) {}
f() {
  g;
  g = 2;
}
main() {}
