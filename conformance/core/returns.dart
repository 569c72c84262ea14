f(a) => a;
g(a) {
  return a;
}
h() {
  return;
}
main() {}
