h(int g(int x)) => 1;

k(String s) => 2;

main() {
  h(k);
}
