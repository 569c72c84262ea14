typedef T F<T>(T x);

main() {
  F<int> f = (int x) => x;
  print(f(1));
  F g = (int x) => x;
  print(g(2));
  F<String> h = (int x) => x;
}
