f(a) => a;

main() {
  f(1, 2);
}
