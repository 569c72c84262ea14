typedef F();

F f = () => 1;

main() {
  print(new Map<int, List<F>>());
}
