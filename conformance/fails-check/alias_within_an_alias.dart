typedef F G(F f);
typedef int F(int x);

main() {
  G g = (F f) => f;
  print('a');
  G h = (int f) => f;
}
