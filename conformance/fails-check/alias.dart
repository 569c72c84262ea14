typedef int F(int x);

main() {
  F f = (int x) => x;
  print(f(1));
  F g = 3;
}
