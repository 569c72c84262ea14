get a => 1;
set a(v) { print('a $v'); }
final b = 2;
set b(v) {}

main() {
  a = 3;
  print(a + b);
}
